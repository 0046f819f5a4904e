<?php

$title = 'Tanner Street'';
$side = 'north';

$kerb = <<<'RELIEF'
    oooooooo
    RELIEF;

return ['relief' => [$kerb]];
