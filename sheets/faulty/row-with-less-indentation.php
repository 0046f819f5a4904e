<?php

$title = 'Chapel Row, two kerbs';

$relief = <<<'RELIEF'
    oooooooooooo    oooooooooooo
               o    o
               o    o
  ..           o    o
  ..           o    o

    oooooooooooo    oooooooooooo
    RELIEF;

return ['title' => $title, 'relief' => [$relief]];
