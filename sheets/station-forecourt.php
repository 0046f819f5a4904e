<?php

$station = (object) ['name' => 'Saint Anne\'s Station', 'bays' => [4, 2]];
$title = "Forecourt of $station->name";
$bays = $station->bays;

$forecourt = <<<'RELIEF'
  ####################    ####################
  #  1    2    3     #    #   T   T          #
  #                  |    |                  #
  #                  |    |                  #
  ##########  ########    ########  ##########
            ..        ....        ..
            ..        ....        ..
            ......................

  oooooooooooooooo            oooooooooooooooo
  B   B   B   B  o            o  X  X  X  X
                 o            o
  oooooooooooooooo   ......   oooooooooooooooo
                     = == =
                     = == =
  oooooooooooooooooooo....oooooooooooooooooooo
  RELIEF;

$legend = [
    '#' => "The front of $station->name; \"|\" is a sliding door",
    '1' => 'Lifts 1 to 3: the call plate is on the right (\'up\' above)',
    'T' => "Ticket machines\n2.50 \u{20AC} a ride",
    'B' => "Bus bays: $bays[0] on the near side",
    'X' => "Taxi rank, {$bays[1]} cars in each lane",
    '.' => 'Guiding stripes, pattern stripes\narrow',
];

return ['title' => $title, 'relief' => [$forecourt], 'legend' => $legend];
