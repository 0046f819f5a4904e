<?php

$legend = <<<LEGEND
LEGEND;

$kerb = <<<'RELIEF'
    oooooooo
    RELIEF;

$note = <<<LEGEND
The kerb is low.
LEGEND;

return ['relief' => [$kerb]];
