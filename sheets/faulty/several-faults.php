<?php

$kerb = <<<'RELIEF'
    oooooooo
  oooooooo
    RELIEF;

$legend = "\400";

$crossing = <<<'RELIEF'
    ####  ####
 	RELIEF;

$island = <<<'RELIEF'
    RRRR
    RELIEF;

return ['relief' => [$kerb, $crossing, $island]];
