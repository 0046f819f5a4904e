<?php

$title = 'EOTstrasse and EOTplatz, from the canal to the tram';

$plan = <<<'EOT'
    EOTstrasse
    oooooooooooooooo      oooooooooooooooo
                   o  ..  o
                   o  ..  o
    oooooooooooooooo  ..  oooooooooooooooo
                      ..
    EOTplatz          ..
    ooooooo           ..           ooooooo
          o  ....................  o
          o  ..                ..  o
    ooooooo  ..                ..  ooooooo

       EOTstrasse
    ~~~~~~~~~~~~~~~~~~~~~~~~~~~~~~~~~~~~~~
    EOT;

$stops = <<<'EOT'
tram stops
EOT1  by the canal
EOT2  on EOTplatz, with a shelter
EOT_  not served at night
EOT;

return ['title' => $title, 'relief' => [$plan, $stops]];
