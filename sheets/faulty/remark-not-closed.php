<?php

$title = 'Tanner Street, a refuge';

$north = <<<'RELIEF'
    oooooooooooooooooooooooo
    RELIEF;

$refuge = 'R'; /* The refuge's ends are rounded:
                  ask the council before embossing.

$south = <<<'RELIEF'
    ooooooo    RR    ooooooo
    RELIEF;

return ['title' => $title, 'relief' => [$north, $south]];
