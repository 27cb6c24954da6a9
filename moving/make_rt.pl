#!/usr/bin/perl
# Makes a real desk of Request Tracker by its own API, for the trial of the move: months of tickets
# in the order of their events, with the clock set by hand. moving/try gives it tables without
# anybody, and how many tickets there are to be.
use strict;
use warnings;
use utf8;
our $NOW;

BEGIN {
    *CORE::GLOBAL::time   = sub () { defined $main::NOW ? $main::NOW : CORE::time };
    *CORE::GLOBAL::gmtime = sub (;$) {
        return CORE::gmtime(@_ && defined $_[0] ? $_[0] : defined $main::NOW ? $main::NOW : CORE::time);
    };
}
use RT -init;
use Encode;
use MIME::Entity;
use Time::Local qw(timegm);

my $COUNT = $ARGV[0] || 200;
my $SYSTEM = RT->SystemUser;
my $BEGIN = timegm(0, 0, 9, 2, 2, 2026);    # a Monday in March
my $SPAN = 60 * 86400;
srand(20261127);
if (RT->Config->Get('DatabaseType') eq 'SQLite') {
    $RT::Handle->dbh->do('PRAGMA synchronous = OFF');
    # RT's tables of SQLite lack these two, and each step would read all of both
    $RT::Handle->dbh->do("CREATE UNIQUE INDEX by_id_$_ ON $_ (id)") for qw(Groups Users);
}
$NOW = $BEGIN - 3600;

sub pick { return $_[rand @_] }
sub sure { my ($ok, $said) = @_; die $said unless $ok; return }

# ---- people, groups, queues and rights

my $persons = 0;

sub person {
    my ($name, $is_privileged) = @_;
    my $user = RT::User->new($SYSTEM);
    my $mail = 'person' . ++$persons . '@people.example';
    my ($ok, $said) = $user->Create(Name => $name, EmailAddress => $mail, Privileged => $is_privileged);
    sure($ok, "$name: $said");
    return $name;
}

my @helpers = map { person($_, 1) } 'bob', 'cid', 'Eva.Maier', "f.o'neil";
my @buyers  = map { person($_, 1) } 'dora', 'G Hansen';
my @askers  = map { person($_, 0) } (map { sprintf 'kunde%02d@customers.example', $_ } 1 .. 12), 'ann',
    'jürgen.groß@kunde.example', 'Łukasz Żółć', '山田太郎', 'a.very.long.name.of.a.person@customers.example';

sub user_of { my $user = RT::CurrentUser->new; $user->Load($_[0]); die "no $_[0]" unless $user->id; return $user }
my %known;
sub who { my ($name) = @_; return $known{$name} ||= user_of($name) }

sub as_system { my $user = RT::User->new($SYSTEM); $user->Load($_[0]); return $user }

sub group {
    my ($name, @members) = @_;
    my $group = RT::Group->new($SYSTEM);
    sure($group->CreateUserDefinedGroup(Name => $name));
    sure($group->AddMember(ref $_ ? $_->PrincipalId : who($_)->UserObj->PrincipalId)) for @members;
    return $group;
}

my $helpers = group('helpers', 'bob', 'cid');
my $shift   = group('Help Desk', 'Eva.Maier', "f.o'neil");
my $staff   = group('All Support', $helpers, $shift);
my $buyers  = group('Purchasing', @buyers);
my $special = group('VIP customers', @askers[0 .. 2]);

sub queue {
    my ($name, %how) = @_;
    my $queue = RT::Queue->new($SYSTEM);
    sure($queue->Create(Name => $name));
    sure($queue->SetLifecycle($how{lifecycle})) if $how{lifecycle};
    sure($queue->SetSLADisabled(0)) if exists $how{level};
    sure($queue->SetSLA($how{level})) if $how{level};
    return $queue;
}

my %queues = (
    'General Support' => queue('General Support', level => 'standard'),
    'Hardware & Devices' => queue('Hardware & Devices', level => '4h'),
    'Field Service' => queue('Field Service', level => undef),
    Purchases => queue('Purchases', lifecycle => 'purchase'),
);
my @SUPPORT = ('General Support', 'Hardware & Devices', 'Field Service');

sub grant {
    my ($to, $where, @rights) = @_;
    sure($to->PrincipalObj->GrantRight(Right => $_, Object => $where)) for @rights;
    return;
}

sub internal { my $group = RT::Group->new($SYSTEM); $group->LoadSystemInternalGroup($_[0]); return $group }

sub rights {
    for my $queue (@queues{@SUPPORT}) {
        grant($staff, $queue, qw(SeeQueue ShowTicket ShowTicketComments ModifyTicket OwnTicket CreateTicket
            DeleteTicket Watch WatchAsAdminCc CommentOnTicket ReplyToTicket TakeTicket StealTicket ForwardMessage));
        grant($buyers, $queue, qw(SeeQueue ShowTicket ModifyTicket OwnTicket CreateTicket DeleteTicket ReassignTicket));
        grant(internal('Everyone'), $queue, qw(CreateTicket ReplyToTicket));
    }
    grant($buyers, $queues{Purchases}, qw(SeeQueue ShowTicket ShowTicketComments ModifyTicket OwnTicket
        CreateTicket ApprovePurchase DeleteTicket));
    grant(internal('Privileged'), $queues{Purchases}, qw(CreateTicket SeeQueue ModifyTicket ShowTicket));
    grant(RT->System->RoleGroup('Requestor'), RT->System, qw(ShowTicket ReplyToTicket));
    grant($queues{'General Support'}->RoleGroup('Cc'), $queues{'General Support'}, 'ShowTicket');
    sure($queues{'General Support'}->AddWatcher(Type => 'Cc', PrincipalId => who('dora')->UserObj->PrincipalId));
    grant(as_system('G Hansen'), RT->System, 'ShowTicket');
    return;
}
rights();

# a role of our own, whose members may see a ticket
my $engineer = RT::CustomRole->new($SYSTEM);
sure($engineer->Create(Name => 'Engineer', MaxValues => 0));
sure($engineer->AddToObject($queues{'General Support'}->id));
grant(RT->System->RoleGroup($engineer->GroupType), $queues{'General Support'}, 'ShowTicket');

# ---- texts

my @WORDS = qw(printer scanner display toner cable mail password login server network plan office door
    lamp key order invoice chair contract report window session);
my @ODD = (
    "Grüße aus Köln – „Anführung“, 100 € für ½ m³",
    "日本語のテキスト：プリンターが壊れました。",
    "say \"hello\" and \\ backslash \\n not a line, 'single' \$HOME %d",
    "a\ttab\n\tindented with a tab\nlast\t",
    "first line\r\nsecond line\r\n\r\nfourth after an empty one\r\n",
    "trailing spaces   \n   leading spaces\n\n\n",
    "%%\n# a line that begins as a comment\n29546970 root status 1 open",
    "-5 degrees outside",
    "bell \x07 and \x1b[31mred\x1b[0m",
    "-- ",
);
my @SUBJECTS = ('Drucker defekt – Büro „3“', '電源が入らない', 'a "quoted" subject', "tab\tin it",
    '-5 degrees in the office', '# of users', 'x' x 210, '%%', ' spaces at both ends ');

sub words { my ($count) = @_; return join ' ', map { pick(@WORDS) } 1 .. $count }

sub text {
    my $lot = rand;
    return pick(@ODD) if $lot < 0.15;
    return words(4000) if $lot < 0.16;    # some 27,000 characters
    return words(3 + rand 25) . pick('.', '!', "\n", '?');
}
sub subject { return rand() < 0.15 ? pick(@SUBJECTS) : ucfirst words(2 + rand 5) }

# A text alone, as HTML, or with a file attached.
sub message {
    my ($kind) = @_;
    my $text = Encode::encode('UTF-8', text());
    if ($kind eq 'html') {
        my $safe = $text =~ s/&/&amp;/gr =~ s/</&lt;/gr;
        return MIME::Entity->build(Type => 'text/html', Charset => 'UTF-8', Encoding => '8bit',
            Data => ["<p>$safe</p><ul><li>one<li>two</ul>"]);
    }
    my @plain = (Type => 'text/plain', Charset => 'UTF-8', Encoding => '8bit', Data => [$text]);
    return MIME::Entity->build(@plain) if $kind eq 'plain';
    my $whole = MIME::Entity->build(Type => 'multipart/mixed');
    $whole->attach(@plain);
    $whole->attach(Type => 'image/png', Filename => 'shot.png', Encoding => 'base64',
        Data => [join '', map { chr rand 256 } 1 .. 900]);
    return $whole;
}
sub any_message { my $lot = rand; return message($lot < 0.06 ? 'html' : $lot < 0.12 ? 'file' : 'plain') }

# ---- what happens, in the order of its moments

my (@events, %tickets, @recent, %count);
sub at { my ($moment, $what) = @_; push @events, [$moment, $what]; return }

# Counts what was done, or that RT refused it.
sub done {
    my ($what, $ok) = @_;
    $count{$ok ? $what : 'refused'}++;
    return $ok;
}

# Three of four things happen in the office's hours.
sub office_time {
    my ($moment) = @_;
    return $moment if rand() > 0.75;
    my $day = $moment - $moment % 86400;
    my $week_day = (CORE::gmtime($day))[6];
    $day += 86400 * ($week_day == 6 ? 2 : $week_day == 0 ? 1 : 0);
    return $day + 28800 + int rand 36000;
}

sub load {
    my ($name, $id) = @_;
    my $ticket = RT::Ticket->new(who($name));
    $ticket->Load($id);
    return $ticket;
}
sub helper_of { my ($ticket) = @_; return $ticket->{queue} eq 'Purchases' ? pick(@buyers) : pick(@helpers, 'dora') }
sub person_id { return who($_[0])->UserObj->PrincipalId }

# The steps of a ticket's life, each with its weight: who does it, on which ticket.
my @STEPS = (
    [14, take => sub {
        my ($who, $id) = @_;
        my $owner = load('dora', $id)->OwnerObj;
        my $type = $owner->id == RT->Nobody->id ? 'Take' : 'Steal';
        return load($who, $id)->SetOwner(who($who)->id, $type);
    }],
    [23, reply => sub { my ($who, $id) = @_; return load($who, $id)->Correspond(MIMEObj => any_message()) }],
    [16, answer => sub {
        my ($who, $id) = @_;
        return load($tickets{$id}{requestor}, $id)->Correspond(MIMEObj => any_message());
    }],
    [11, comment => sub { my ($who, $id) = @_; return load($who, $id)->Comment(MIMEObj => any_message()) }],
    [10, status => sub {
        my ($who, $id) = @_;
        my @to = $tickets{$id}{queue} eq 'Purchases' ? ('approved', 'on order', 'received', 'refused')
            : qw(open stalled open stalled rejected);
        return load($who, $id)->SetStatus(pick(@to));
    }],
    [5, watch => sub {
        my ($who, $id) = @_;
        my ($role, $name) = (pick(qw(Cc Cc AdminCc Requestor)), pick(@askers, @helpers));
        my $ok = load($who, $id)->AddWatcher(Type => $role, PrincipalId => person_id($name));
        push @{ $tickets{$id}{watchers} }, [$role, $name] if $ok;
        return $ok;
    }],
    [2, unwatch => sub {
        my ($who, $id) = @_;
        my $watcher = pop @{ $tickets{$id}{watchers} } or return;
        return load($who, $id)->DeleteWatcher(Type => $watcher->[0], PrincipalId => person_id($watcher->[1]));
    }],
    [2, watching_group => sub {
        my ($who, $id) = @_;
        return load($who, $id)->AddWatcher(Type => pick(qw(Cc AdminCc)), PrincipalId => pick($shift, $special)->PrincipalId);
    }],
    [2, engineer => sub {
        my ($who, $id) = @_;
        return if $tickets{$id}{queue} ne 'General Support';
        return load($who, $id)->AddWatcher(Type => $engineer->GroupType, PrincipalId => person_id(pick(@askers)));
    }],
    [5, link => sub {
        my ($who, $id) = @_;
        my $other = pick(@recent);
        return if $other == $id;
        my ($type, $end) = @{ pick(map { [$_, 'Target'] } qw(DependsOn RefersTo MemberOf)) };
        $end = 'Base' if rand() < 0.3;
        my $ok = load('dora', $id)->AddLink(Type => $type, $end => $other);
        push @{ $tickets{$id}{links} }, [$type, $end, $other] if $ok;
        return $ok;
    }],
    [2, unlink => sub {
        my ($who, $id) = @_;
        my $link = pop @{ $tickets{$id}{links} } or return;
        return load('dora', $id)->DeleteLink(Type => $link->[0], $link->[1] => $link->[2]);
    }],
    [1, address => sub { my ($who, $id) = @_; return load($who, $id)->AddLink(Type => 'RefersTo', Target => 'https://wiki.example/') }],
    [3, level => sub {
        my ($who, $id) = @_;
        return if $tickets{$id}{queue} eq 'Purchases';
        return load($who, $id)->SetSLA(pick('standard', '4h', 'Field', 'At once', 'both', 'contract', ''));
    }],
    [2, give => sub { my ($who, $id) = @_; return load('dora', $id)->SetOwner(person_id(helper_of($tickets{$id})), 'Give') }],
    [2, untake => sub {
        my ($who, $id) = @_;
        my $owner = load('dora', $id)->OwnerObj;
        return load('dora', $id)->SetOwner(RT->Nobody->id, 'Force') if rand() < 0.5;
        return load($owner->Name, $id)->SetOwner(RT->Nobody->id, 'Untake');
    }],
    [2, subject => sub { my ($who, $id) = @_; return load($who, $id)->SetSubject(subject()) }],
    [1, priority => sub { my ($who, $id) = @_; return load($who, $id)->SetPriority(int rand 90) }],
    [2, other_queue => sub {
        my ($who, $id) = @_;
        my $to = pick(@SUPPORT);
        return if $tickets{$id}{queue} eq 'Purchases' || $to eq $tickets{$id}{queue};
        my $ok = load('dora', $id)->SetQueue($queues{$to}->id);
        $tickets{$id}{queue} = $to if $ok;
        return $ok;
    }],
    [2, merge => sub {
        my ($who, $id) = @_;
        my $into = pick(@recent);
        return if $into == $id || $tickets{$into}{gone};
        my $ok = load('dora', $id)->MergeInto($into);
        $tickets{$id}{gone} = 1 if $ok;
        return $ok;
    }],
    [1, delete => sub { my ($who, $id) = @_; return load('dora', $id)->SetStatus('deleted') }],
    [1, due_by_hand => sub {
        my ($who, $id) = @_;
        my $date = RT::Date->new($SYSTEM);
        $date->Set(Format => 'unix', Value => $NOW + 86400 * (1 + int rand 10));
        return load('dora', $id)->SetDue($date->ISO);
    }],
    [2, reminder => sub {
        my ($who, $id) = @_;
        my $reminders = RT::Reminders->new(who($who));
        $reminders->Ticket($id);
        return $reminders->Add(Subject => 'remember', Owner => who($who)->id);
    }],
);

sub step {
    my ($id) = @_;
    return if $tickets{$id}{gone};
    my $lot = rand 111;
    for my $step (@STEPS) {
        my ($weight, $name, $do) = @$step;
        $lot -= $weight;
        next if $lot > 0;
        my $ok = eval { $do->(helper_of($tickets{$id}), $id) };
        return done($name, $ok);
    }
    return;
}

sub close_ticket {
    my ($id) = @_;
    return if $tickets{$id}{gone};
    my $who = helper_of($tickets{$id});
    return done(resolve => load($who, $id)->SetStatus('resolved')) if $tickets{$id}{queue} ne 'Purchases';
    for my $status ('approved', 'on order', 'received') {
        done(status => load($who, $id)->SetStatus($status));
        $NOW += 120;
    }
    return;
}

sub live {
    my ($id) = @_;
    my $moment = $NOW;
    for (1 .. 2 + int rand 7) {
        my $next = office_time($moment + 600 + int(-log(1 - rand) * 20 * 3600));
        $moment = $next if $next > $moment;
        at($moment, sub { step($id) });
    }
    at($moment + 3600 + int rand 200000, sub { close_ticket($id) }) if rand() < 0.5;
    at($moment + 300000 + int rand 300000, sub {
        return if $tickets{$id}{gone};
        done(answer => load($tickets{$id}{requestor}, $id)->Correspond(MIMEObj => any_message()));
    }) if rand() < 0.25;
    return;
}

# A ticket: three of four are filed by those who ask, the others for them.
sub create {
    my $queue = rand() < 0.2 ? 'Purchases' : pick(@SUPPORT);
    my $asker = $queue eq 'Purchases' ? pick(@helpers) : pick(@askers);
    my $is_for_another = $queue ne 'Purchases' && rand() < 0.25;
    my $by = $is_for_another ? pick(@helpers) : $asker;
    my %ticket = (Queue => $queue, Subject => subject(), Requestor => who($asker)->EmailAddress);
    $ticket{MIMEObj} = any_message() if rand() < 0.85;
    $ticket{Cc} = who(pick(@askers))->EmailAddress if rand() < 0.1;
    if ($is_for_another) {
        $ticket{Requestor} = [] if rand() < 0.1;
        $ticket{Status} = pick('open', 'resolved') if rand() < 0.3;
        $ticket{Owner} = $by if rand() < 0.3;
        $ticket{SLA} = 'At once' if $queue eq 'General Support' && rand() < 0.3;
        $ticket{RefersTo} = pick(@recent) if @recent && rand() < 0.3;
    }
    my ($id) = RT::Ticket->new(who($by))->Create(%ticket);
    return unless done(create => $id);
    $tickets{$id} = { queue => $queue, requestor => $asker };
    push @recent, $id;
    shift @recent if @recent > 40;
    return live($id);
}

at(office_time($BEGIN + int rand $SPAN), \&create) for 1 .. $COUNT;
while (@events) {
    @events = sort { $a->[0] <=> $b->[0] } @events;
    my ($moment, $what) = @{ shift @events };
    $NOW = $moment if $moment > $NOW;
    DBIx::SearchBuilder::Record::Cachable->FlushCache;
    $what->();
}
sure(as_system('G Hansen')->SetDisabled(1));
printf "%-16s %5d\n", $_, $count{$_} for sort keys %count;
