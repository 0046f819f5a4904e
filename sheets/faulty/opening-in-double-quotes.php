<?php

$kerb = <<<'RELIEF'
    oooooooo
    RELIEF;

$crossing = <<<"RELIEF"
    ####  ####
    # it's wet
    RELIEF;

return ['relief' => [$kerb, $crossing]];
