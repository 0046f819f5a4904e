<?

$kerb = <<<'RELIEF'
    oooooooo
    RELIEF;

return ['relief' => [$kerb]];
