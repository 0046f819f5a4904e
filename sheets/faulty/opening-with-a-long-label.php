<?php

$kerb = <<<'RELIEF'
    oooooooo
    RELIEF;

$crossing = <<<'RELIEF_OF_THE_LONG_STREET_OF_THE_LONG_STREET_OF_THE_LONG_STREET_X'
    ####  ####
    RELIEF_OF_THE_LONG_STREET_OF_THE_LONG_STREET_OF_THE_LONG_STREET_X;

return ['relief' => [$kerb, $crossing]];
