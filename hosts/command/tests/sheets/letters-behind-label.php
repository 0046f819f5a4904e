<?php
$a = <<<'E'
  o
  East
  E;
$b = <<<'ROW'
ROW2
 	ROWS
ROW_;
ROWä
ROW;
f(<<<'ROW'
ROW, <<<'E'
E7
E);
