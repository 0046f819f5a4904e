<?php

$kerb = <<<'RELIEF'
    oooooooo
    RELIEF;

$width = 1 <<< 3;

return ['relief' => [$kerb]];
