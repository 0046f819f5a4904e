<?php
<<<'A'
<script>alert("1")</script> & 'x'
A;
