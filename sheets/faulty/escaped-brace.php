<?php

$width = 4;
$size = "\{$width, 3";

$kerb = <<<'RELIEF'
    oooooooo
    RELIEF;

return ['relief' => [$kerb]];
