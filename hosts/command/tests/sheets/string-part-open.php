<?php
$a = "two $kerb and
no end