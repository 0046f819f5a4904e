<?php

$legend = <<<ST
The kerb is low.
STation side
'Mind the gap'
ST;

$kerb = <<<'RELIEF'
    oooooooo
    RELIEF;

return ['relief' => [$kerb]];
