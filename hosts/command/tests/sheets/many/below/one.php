<?php <<<'A'
o
A;
