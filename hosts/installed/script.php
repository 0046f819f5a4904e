<?php
<<<'RELIEF'
  ..##
  RELIEF;
'kerb