<?php

$title = 'Mill Lane crosses Harbour Street';
$scale = '1:250';

$ground = <<<'RELIEF'
##############     o            o     ##############
##############     o            o     ##############
##############     o            o     ##############
                   o            o
             ...   o            o   ...
             ...   o            o   ...
ooooooooooooo   oooo            oooo   ooooooooooooo

             = =                    = =
             = =                    = =
             = =                    = =

ooooooooooooo   oooo            oooo   ooooooooooooo
             ...   o            o   ...
             ...   o            o   ...
                   o            o
##############     o            o     ##############
##############     o            o     ##############
##############     o            o     ##############
RELIEF;

$corner = <<<'RELIEF'
    . . . . . .      o
     . . . . . .     o
    . . . . . .      o
                     o
    oooo        oooooo
       \        /

       | |    | |
    RELIEF;

return [
    'title' => $title,
    'scale' => $scale,
    'relief' => [$ground, $corner],
    'legend' => [
        'o' => 'kerb, two dots high',
        '.' => 'paving that tells of a crossing',
        '=' => 'stripes of the crossing',
    ],
];
