<?php// The kerb

$kerb = <<<'RELIEF'
    oooooooo
    RELIEF;

return ['relief' => [$kerb]];
