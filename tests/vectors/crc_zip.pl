# CRC-32 by Archive::Zip, for the lists of whole bytes among those read; writes `crc BITS HEX` for each.
use strict;
use warnings;
use Archive::Zip;

while (my $written = <STDIN>) {
    chomp $written;
    next if $written =~ /^#/;
    my $bits = $written eq '-' ? '' : $written;
    next if length($bits) % 8;
    # b* packs the lowest bit of each byte first
    printf "crc %s %08X\n", $written, Archive::Zip::computeCRC32(pack 'b*', $bits);
}
