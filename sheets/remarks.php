<?php

// Weaver's Yard: walked in May, the pump's basin added in June.
$title = 'Weaver\'s Yard, from the arch to the pump';

# Walls are raised by "#", setts by "//"; both are rows below.
$yard = <<<'RELIEF'
    ##################    ##################
    #                #    #                #
    #  // // // //   |    |   // // // //  #
    #  // // // //   |    |   // // // //  #
    #                #    #                #
    ##################    ##################
    // the arch's setts begin here
    # and end at the wall
    /* the gutter, two dots deep */
    RELIEF;

/*
 * The basin: "as built", says the mason.
 * Neither a quote (") nor a ?> ends this remark,
 * and <<<'RELIEF' opens no block in it.
 */
#[Walked('June')]
function basin(): string
{
    return <<<'RELIEF'
        ooooooooooo
        o  =====  o
        o  = P =  o
        ooooooooooo
        RELIEF; # it's the pump
}

$scale = '1:100'; // one dot is ten centimetres ?>
<?php
/**/ return ['title' => $title, 'scale' => $scale, 'relief' => [$yard, basin()]]; /* the end */
