<?php

$kerb = <<<'RELIEF'
    oooooooo
    RELIEF;

__halt_compiler();
$crossing = <<<'RELIEF'
    ####  ####
    RELIEF;
