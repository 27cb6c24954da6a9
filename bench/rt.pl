#!/usr/bin/perl
# RT's own API in one process, with rights asked as its pages do. It reads lines "WHAT COUNT", does
# that so often, and answers each with "done". bench/rt starts it.
use strict;
use warnings;
use RT -init;

$| = 1;
my $SYSTEM = RT->SystemUser;
my %known;

sub who {
    my ($name) = @_;
    return $known{$name} ||= do { my $user = RT::CurrentUser->new; $user->Load($name); $user };
}
sub sure { my ($ok, $said) = @_; die $said unless $ok; return }

sub load {
    my ($name, $id) = @_;
    my $ticket = RT::Ticket->new(who($name));
    $ticket->Load($id);
    return $ticket;
}

# ann, who asks, and bob of the group staff, who may do what staff does in the queue General.
sub people {
    my $staff = RT::Group->new($SYSTEM);
    sure($staff->CreateUserDefinedGroup(Name => 'staff'));
    for my $name ('ann', 'bob') {
        my $user = RT::User->new($SYSTEM);
        my ($ok, $said) = $user->Create(Name => $name, EmailAddress => "$name\@try.example",
            Password => "secret-$name", Privileged => 1);
        sure($ok, $said);
        sure($staff->AddMember($user->PrincipalId)) if $name eq 'bob';
    }
    my $queue = RT::Queue->new($SYSTEM);
    $queue->Load('General');
    sure($staff->PrincipalObj->GrantRight(Right => $_, Object => $queue))
        for qw(SeeQueue CreateTicket ShowTicket ShowTicketComments ModifyTicket ReplyToTicket
        CommentOnTicket OwnTicket TakeTicket StealTicket);
    my $everyone = RT::Group->new($SYSTEM);
    $everyone->LoadSystemInternalGroup('Everyone');
    sure($everyone->PrincipalObj->GrantRight(Right => 'CreateTicket', Object => $queue));
    return;
}

# Files the next ticket; of a hundred some are taken, some stalled and some resolved.
my $filed = 0;
sub file {
    $filed++;
    my ($id, undef, $said) = RT::Ticket->new(who('ann'))->Create(Queue => 'General',
        Subject => "printer $filed broken", Requestor => 'ann@try.example');
    sure($id, $said);
    sure(load('bob', $id)->SetOwner(who('bob')->id, 'Take')) if $filed % 3 == 0;
    sure(load('bob', $id)->SetStatus($filed % 10 == 0 ? 'resolved' : 'stalled')) if $filed % 2 == 0;
    return;
}

# All that `rt show -l` prints of a ticket.
my $shown = 0;
sub show {
    my $ticket = load('bob', $shown++ % 100 + 1);
    die 'not seen' unless $ticket->CurrentUserHasRight('ShowTicket');
    my $text = join "\n", $ticket->id, $ticket->QueueObj->Name, $ticket->Subject, $ticket->Status,
        $ticket->OwnerObj->Name, $ticket->RequestorAddresses, $ticket->CcAddresses,
        $ticket->AdminCcAddresses, $ticket->SLA // '-', $ticket->CreatedAsString, $ticket->DueObj->AsString;
    for my $kind (qw(DependsOn DependedOnBy MemberOf Members RefersTo ReferredToBy)) {
        my $links = $ticket->$kind;
        while (my $link = $links->Next) { $text .= $link->id }
    }
    return length $text;
}

# The queue's tickets by number, with the columns of the desk's list.
sub list {
    my $tickets = RT::Tickets->new(who('bob'));
    sure($tickets->FromSQL("Queue = 'General'"));
    $tickets->OrderBy(FIELD => 'id', ORDER => 'ASC');
    my $text = '';
    while (my $ticket = $tickets->Next) {
        $text .= join("\t", $ticket->id, $ticket->Status, $ticket->OwnerObj->Name, $ticket->DueObj->AsString,
            $ticket->Subject) . "\n";
    }
    return length $text;
}

my %DO = (people => \&people, file => \&file, show => \&show, list => \&list);
while (my $line = <STDIN>) {
    my ($what, $count) = split ' ', $line;
    $DO{$what}->() for 1 .. $count;
    print "done\n";
}
