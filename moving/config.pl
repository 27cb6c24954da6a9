#!/usr/bin/perl
# Prints as JSON what the desk's settings need of RT's configuration, as RT itself reads it: the
# lifecycles, the levels, their opening hours and the time zone. Debian's RT finds itself by
#   perl -I/usr/share/request-tracker5/lib moving/config.pl > config.json
use strict;
use warnings;
use RT -init;
use JSON;

my %lifecycles = RT->Config->Get('Lifecycles');
delete $lifecycles{__maps__};
my %agreements = RT->Config->Get('ServiceAgreements');
my %hours      = RT->Config->Get('ServiceBusinessHours');
print JSON->new->utf8->canonical->allow_blessed->encode({
    lifecycles => \%lifecycles,
    agreements => \%agreements,
    hours      => \%hours,
    zone       => RT->Config->Get('Timezone'),
}), "\n";
