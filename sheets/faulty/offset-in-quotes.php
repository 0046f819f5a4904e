<?php

$sides = ['north' => 'N'];
$legend = "Platform $sides['north']";

$kerb = <<<'RELIEF'
    oooooooo
    RELIEF;

return ['relief' => [$kerb]];
