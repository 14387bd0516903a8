# Writes the mapping of perl's Encode, for independent_converters.py, in the form of DumpCharset.java.
#
#     perl dump_encode.pl ENCODING...
use strict;
use warnings;
no warnings 'utf8';
use Encode ();

sub decoded {
    my ($encoding, $bytes) = @_;
    my $text = eval { $encoding->decode($bytes, Encode::FB_CROAK) };
    return defined $text ? $text : '';
}

for my $name (@ARGV) {
    my $encoding = Encode::find_encoding($name) or die "dump_encode: no encoding $name\n";
    print "C $name\n";
    for my $first (0 .. 255) {
        my $alone = decoded($encoding, chr $first);
        if (length $alone == 1) {
            printf "D %02X %04X\n", $first, ord $alone;
            next;
        }
        for my $second (0 .. 255) {
            my $pair = decoded($encoding, chr($first) . chr($second));
            printf "D %02X%02X %04X\n", $first, $second, ord $pair if length $pair == 1;
        }
    }
    for my $unit (0 .. 0xD7FF, 0xE000 .. 0xFFFF) {
        my $text = chr $unit;
        my $code = eval { $encoding->encode($text, Encode::FB_CROAK) };
        printf "E %04X %s\n", $unit, uc unpack 'H*', $code if defined $code && length $code;
    }
}
