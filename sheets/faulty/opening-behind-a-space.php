<?php

$kerb = <<<'RELIEF'
    oooooooo
    RELIEF;

$crossing = <<< 'RELIEF'
    ####  ####
    RELIEF;

return ['relief' => [$kerb, $crossing]];
