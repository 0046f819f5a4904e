<?php
$kerb = "no end;
$x = 1;
