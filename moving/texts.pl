#!/usr/bin/perl
# Prints as JSON the text of each filing, reply and comment of a ticket as RT itself tells it, with the
# type of what it was made of: by the transaction's number.
use strict;
use warnings;
use RT -init;
use JSON;

my $all = RT::Transactions->new(RT->SystemUser);
$all->Limit(FIELD => 'ObjectType', VALUE => 'RT::Ticket');
$all->Limit(FIELD => 'Type', OPERATOR => 'IN', VALUE => [qw(Create Correspond Comment)]);
$all->OrderByCols({ FIELD => 'id', ORDER => 'ASC' });
my %told;
while (my $it = $all->Next) {
    my $body = $it->ContentObj or next;
    $told{ $it->id } = [$body->ContentType, $it->Content(Wrap => 0)];
}
print JSON->new->utf8->canonical->encode(\%told), "\n";
