<?php
$legend = "kerb \400, $name \501";
$text = <<<E
tram\7770 $stop\412
E;
$same = '\400' . `\400` . "\377\\400";
$relief = <<<'RELIEF'
o\400o
RELIEF;
