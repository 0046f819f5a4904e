<?php <<<'A'
o
