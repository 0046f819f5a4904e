<?php

$kerb = <<<'RELIEF'
    oooooooo    oooooooo
    RELIEF;

return ['relief' => [$kerb]];
