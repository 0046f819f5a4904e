<?php
// Holds this PHP to a file of `KIND TEXT => ANSWER` lines; `#` starts a comment line. Called by `php`, beside it. With
// the word `say` after the file it prints the file with this PHP's own answers.
//
//   code    the tokens of TEXT behind `<?php `
//   script  the tokens of TEXT as a whole script
//   short   the same with short tags on; lines of this kind are tried alone, in a run with that setting
//   value   what TEXT gives as an expression in which $a is 'A', and a warning; text in hex, `-` for no bytes
//   octals  TEXT eight times, with each octal digit in place of ⑧: the texts that it gives, in hex
//   closes  the bytes, as ranges in hex, that behind the label TEXT at a line's start leave it the closer of a nowdoc block
//   within  TEXT is a kind and a text behind `<?php `: the bytes, as ranges in hex, that in place of ■ belong to a
//           token of that kind
//   true    the bytes, as ranges in hex, with which in place of ■ the expression TEXT is true
//
// A token is its kind and its text, or its one sign. In TEXT and tokens the signs below stand for bytes.

const FORM = '/^(\w+) (.*) => (.*)$/';
const SIGNS = ['⏎' => "\n", '␍' => "\r", '⇥' => "\t", '·' => ' ', '␁' => "\x01"];

exit(isset($argv[2]) ? say($argv[1]) : main($argv[1]));

function main(string $path): int
{
    $tags = ini_get('short_open_tag') ? 'on' : 'off';
    $tried = 0;
    foreach (file($path, FILE_IGNORE_NEW_LINES) as $index => $line) {
        if ($line === '' || $line[0] === '#') {
            continue;
        }
        if (!preg_match(FORM, $line, $parts)) {
            return failed($index, $line, 'KIND TEXT => ANSWER', 'another form');
        }
        [, $kind, $text, $expected] = $parts;
        if (($kind === 'short') !== ($tags === 'on')) {
            continue;
        }
        $got = answer($kind, strtr($text, SIGNS));
        if ($got !== $expected) {
            return failed($index, $line, $expected, $got);
        }
        $tried++;
    }
    echo 'ok PHP ', PHP_VERSION, ', ', basename($path), ", short tags $tags ($tried answers)\n";
    return $tried > 0 ? 0 : 1;
}

function say(string $path): int
{
    foreach (file($path, FILE_IGNORE_NEW_LINES) as $line) {
        $is_answer = preg_match(FORM, $line, $parts) && $line[0] !== '#';
        echo $is_answer ? "$parts[1] $parts[2] => " . answer($parts[1], strtr($parts[2], SIGNS)) : $line, "\n";
    }
    return 0;
}

function failed(int $index, string $line, string $expected, string $got): int
{
    echo 'FAILED PHP ', PHP_VERSION, "\n  line     ", $index + 1, " $line\n  expected $expected\n  got      $got\n";
    return 1;
}

function answer(string $kind, string $text): string
{
    return match ($kind) {
        'code' => tokens(array_slice(token_get_all("<?php $text"), 1)),
        'script', 'short' => tokens(token_get_all($text)),
        'value' => value($text),
        'octals' => octals($text),
        'closes' => ranges(fn ($byte) => closes($text, $byte)),
        'within' => ranges(fn ($byte) => is_within($text, $byte)),
        'true' => ranges(fn ($byte) => is_true($text, $byte)),
        default => 'no such kind',
    };
}

function tokens(array $tokens): string
{
    $shown = fn ($text) => strtr($text, array_flip(SIGNS));
    $one = fn ($token) => is_array($token) ? token_name($token[0]) . ' ' . $shown($token[1]) : $token;
    return $tokens === [] ? 'none' : implode(' | ', array_map($one, $tokens));
}

function value(string $expression): string
{
    error_clear_last();
    try {
        $value = evaluated($expression);
    } catch (ParseError $error) {
        return 'error ' . $error->getMessage();
    }
    $warning = error_get_last();
    return shown_value($value) . ($warning ? ", warning {$warning['message']}" : '');
}

function evaluated(string $expression): mixed
{
    $a = 'A';
    return @eval("return $expression;");
}

function octals(string $expression): string
{
    $one = fn ($digit) => bin2hex(evaluated(str_replace('⑧', (string) $digit, $expression)));
    return implode(' ', array_map($one, range(0, 7)));
}

function shown_value(mixed $value): string
{
    if (is_string($value)) {
        return 'text ' . ($value === '' ? '-' : bin2hex($value));
    }
    return gettype($value) . ' ' . var_export($value, true);
}

function closes(string $label, string $behind): bool
{
    $tokens = token_get_all("<?php <<<'$label'\na\n$label$behind\n$label;\n");
    return $tokens[2][1] === "a\n";
}

function is_within(string $text, string $byte): bool
{
    [$kind, $text] = explode(' ', $text, 2);
    $left = strpos("<?php $text", '■');
    foreach (token_get_all('<?php ' . str_replace('■', $byte, $text)) as $token) {
        $left -= strlen(is_array($token) ? $token[1] : $token);
        if ($left < 0) {
            return is_array($token) && token_name($token[0]) === $kind;
        }
    }
    return false;
}

function is_true(string $expression, string $byte): bool
{
    try {
        return evaluated(str_replace('■', $byte, $expression)) === true;
    } catch (ParseError) {
        return false;
    }
}

function ranges(callable $holds): string
{
    $bytes = array_filter(range(0, 255), fn ($byte) => $holds(chr($byte)));
    $ranges = [];
    foreach ($bytes as $byte) {
        $ranges[] = in_array($byte - 1, $bytes) ? [array_pop($ranges)[0], $byte] : [$byte, $byte];
    }
    $shown = fn ($range) => implode('-', array_map(fn ($byte) => sprintf('%02x', $byte), array_unique($range)));
    return implode(' ', array_map($shown, $ranges));
}
