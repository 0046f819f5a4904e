<?php

$title = 'Bell Street, a lay-by';

$relief = <<<'RELIEF'
    ooooooooo      ooooooooo
            o      o
            oooooooo
    =   =   =  =  =   =   =
    oooooooooooooooooooooooo
  	RELIEF;

return ['title' => $title, 'relief' => [$relief]];
