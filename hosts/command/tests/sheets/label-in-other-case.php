<?php
f(<<<'ROAD'
  oo
  road);
