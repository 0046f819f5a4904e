<?php
echo <<<ROAD
  kerb $x
