<?php

$legend = <<<LEGEND
The kerb is low.LEGEND;

$kerb = <<<'RELIEF'
    oooooooo
    RELIEF;

$note = <<<LEGEND
Mind the gap.
LEGEND;

return ['relief' => [$kerb]];
