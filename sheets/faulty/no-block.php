<?php

$legend = 'The kerb is low.';

return ['legend' => $legend];
