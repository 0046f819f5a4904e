<?php

$title = 'Rope Walk, the footbridge';

$north = <<<'RELIEF'
oooooooo        oooooooo
       o  ....  o
       o  ....  o
RELIEF;

$south = <<<'RELIEF'
       o  ....  o
       o  ....  o
oooooooo        oooooooo

return ['title' => $title, 'relief' => [$north, $south]];
