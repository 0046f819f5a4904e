<?php
$a = <<<'EOT'
    oo
  EOTstrasse
    EOT2
    EOT;
