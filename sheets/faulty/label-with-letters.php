<?php

$title = 'Fuller Street, the bus lay-by';

$north = <<<'PLAN'
    oooooooooooooooooooooooo
    PLAN;

$south = <<<'PLAN'
    ooooooo          ooooooo
          o  ======  o
          oooooooooooo
    PLANS;

return ['title' => $title, 'relief' => [$north, $south]];
