<?php
<<<'A'
  oo

   o
  A;
