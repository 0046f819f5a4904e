<?php
$kerb = 'no end