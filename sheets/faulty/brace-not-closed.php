<?php

$kerb = <<<'RELIEF'
    oooooooo
    RELIEF;

$width = 4;
$size = "{$width . 'm';
