"""Notices as some twenty systems send them, typed from what they are known to say, and mail that is no bounce. Each has a verdict: None if it is a
bounce, or why it isn't given to a list. The rows are texts: a line `== VERDICT NAME`, and a mail after it."""

NOTICES = r'''
== None exim
From: Mail Delivery System <Mailer-Daemon@mx.m.net>
Auto-Submitted: auto-replied
X-Failed-Recipients: b@m.net
Subject: Mail delivery failed: returning message to sender

This message was created automatically by mail delivery software.

A message that you sent could not be delivered to one or more of its
recipients. This is a permanent error. The following address(es) failed:

  b@m.net
    all relevant MX records point to non-existent hosts
== delayed exim-delay
From: Mail Delivery System <Mailer-Daemon@mx.m.net>
Auto-Submitted: auto-replied
Subject: Warning: message 1tQ8Zb-0002yD-2f delayed 24 hours

This message was created automatically by mail delivery software.
A message that you sent has not yet been delivered to one or more of its
recipients after more than 24 hours on the queue on mx.m.net.

No action is required on your part. Delivery attempts will continue for
some time, and this warning may be repeated at intervals if the message
remains undelivered.
== None postfix-without-a-report
From: MAILER-DAEMON@mx.m.net (Mail Delivery System)
Subject: Undelivered Mail Returned to Sender
Auto-Submitted: auto-replied

This is the mail system at host mx.m.net.

I'm sorry to have to inform you that your message could not
be delivered to one or more recipients. It's attached below.

<b@m.net>: host mx.m.net[192.0.2.1] said: 550 5.1.1 <b@m.net>: Recipient
    address rejected: User unknown in local recipient table
== delayed postfix-delay
From: MAILER-DAEMON@mx.m.net (Mail Delivery System)
Subject: Delayed Mail (still being retried)
Auto-Submitted: auto-replied

This is the mail system at host mx.m.net.

####################################################################
# THIS IS A WARNING ONLY.  YOU DO NOT NEED TO RESEND YOUR MESSAGE. #
####################################################################
== None sendmail
From: Mail Delivery Subsystem <MAILER-DAEMON@mx.m.net>
Subject: Returned mail: see transcript for details
Auto-Submitted: auto-generated (failure)

The original message was received at Tue, 2 Jan 2024 10:00:00 GMT
from localhost [127.0.0.1]

   ----- The following addresses had permanent fatal errors -----
<b@m.net>
    (reason: 550 5.1.1 <b@m.net>... User unknown)
== delayed sendmail-delay
From: Mail Delivery Subsystem <MAILER-DAEMON@mx.m.net>
Subject: Warning: could not send message for past 4 hours
Auto-Submitted: auto-generated (warning-timeout)

    **********************************************
    **      THIS IS A WARNING MESSAGE ONLY      **
    **  YOU DO NOT NEED TO RESEND YOUR MESSAGE  **
    **********************************************
== None exchange-without-a-report
From: System Administrator <postmaster@m.net>
Subject: Undeliverable: hello

Your message

  To:      b@m.net
  Subject: hello
  Sent:    Tue, 2 Jan 2024 10:00:00 +0000

did not reach the following recipient(s):

b@m.net on Tue, 2 Jan 2024 10:00:05 +0000
    The recipient name is not recognized
== None exchange-without-an-address
From: System Administrator
Subject: Undeliverable: hello

did not reach the following recipient(s)
== None exchange-of-a-late-parcel
From: System Administrator <postmaster@m.net>
Subject: Undeliverable: Your parcel is delayed
X-Auto-Response-Suppress: All

Your message did not reach some or all of the intended recipients.
== None m365
From: Microsoft Outlook <MicrosoftExchange329e71ec88ae4615bbc36ab6ce41109e@m.onmicrosoft.com>
Subject: Undeliverable: hello
X-Auto-Response-Suppress: DR, OOF, AutoReply
Auto-Submitted: auto-replied
Content-Type: multipart/report; report-type=delivery-status; boundary="r"

--r
Content-Type: text/html; charset="us-ascii"

<p>Your message to b@m.net couldn't be delivered.</p>
--r
Content-Type: message/delivery-status

Reporting-MTA: dns;AM0PR01MB0001.eurprd01.prod.exchangelabs.com

Final-Recipient: rfc822;b@m.net
Action: failed
Status: 5.1.10
Diagnostic-Code: smtp;550 5.1.10 RESOLVER.ADR.RecipientNotFound
--r--
== None m365-german
From: postmaster@m.net
Subject: Unzustellbar: Ihr Paket ist delayed
X-Auto-Response-Suppress: All
Content-Type: text/plain; charset="utf-8"
Content-Transfer-Encoding: base64

SWhyZSBOYWNocmljaHQga29ubnRlIG5pY2h0IHp1Z2VzdGVsbHQgd2VyZGVuLg==
== delayed m365-delay
From: postmaster@m.net
Subject: Delivery delayed:hello
X-Auto-Response-Suppress: All

Delivery is delayed to these recipients or groups:

b@m.net

This message hasn't been delivered yet. Delivery will continue to be attempted.
== None gmail
From: Mail Delivery Subsystem <mailer-daemon@googlemail.com>
Auto-Submitted: auto-replied
Subject: Delivery Status Notification (Failure)

Address not found
Your message wasn't delivered to b@m.net because the address couldn't be
found, or is unable to receive mail.
== delayed gmail-delay
From: Mail Delivery Subsystem <mailer-daemon@googlemail.com>
Auto-Submitted: auto-replied
Subject: Delivery Status Notification (Delay)

There was a temporary problem delivering your message to b@m.net. Gmail will
retry for 47 more hours.
== None gmail-of-a-late-train
From: Mail Delivery Subsystem <mailer-daemon@googlemail.com>
Subject: Delivery Status Notification (Failure) of "The train is delayed"

The response was: 550 5.1.1 The email account that you tried to reach does not exist.
== None qmail
From: MAILER-DAEMON@mx.m.net
Subject: failure notice

Hi. This is the qmail-send program at mx.m.net.
I'm afraid I wasn't able to deliver your message to the following addresses.
This is a permanent error; I've given up. Sorry it didn't work out.

<b@m.net>:
Sorry, no mailbox here by that name. (#5.1.1)

--- Below this line is a copy of the message.

Subject: no action is required on your part
== None qmail-of-another-author
From: returns@m.net
Subject: About your mail

Hi. This is the qmail-send program at m.net.
I'm afraid I wasn't able to deliver your message to the following addresses.
== None courier
From: "Courier mail server at mx.m.net" <@>
Subject: NOTICE: mail delivery status.
Content-Type: multipart/report; report-type=delivery-status; boundary="=_c"

--=_c
Content-Type: text/plain

This is a delivery status notification from mx.m.net,
running the Courier mail server, version 1.0.
--=_c
Content-Type: message/delivery-status

Reporting-MTA: dns; mx.m.net

Final-Recipient: rfc822; b@m.net
Action: failed
Status: 5.0.0
--=_c--
== None yahoo
From: MAILER-DAEMON@yahoo.com
Subject: Failure Notice

Sorry, we were unable to deliver your message to the following address.

<b@yahoo.com>:
554: delivery error: dd This user doesn't have a yahoo.com account
== None domino
From: Postmaster@m.net
Subject: DELIVERY FAILURE: User b (b@m.net) not listed in Domino Directory

Your message

  Subject: hello

was not delivered to:

  b@m.net

because:

  User b (b@m.net) not listed in Domino Directory
== automatic domino-away
From: b@m.net
Subject: AUTO: b is out of the office (returning 05/01/2024)

Note: This is an automated response to your message "hello".
== None groupwise
From: Mailer-Daemon@gw.m.net
Subject: Message status - undeliverable

The message that you sent was undeliverable to the following:
     b (user not found)
== None zimbra
From: MAILER-DAEMON@zimbra.m.net (Mail Delivery System)
Subject: Undelivered Mail Returned to Sender

This is the mail system at host zimbra.m.net.

<b@m.net>: mail for m.net loops back to myself
== automatic zimbra-away
From: b@m.net
Subject: Re: hello
Precedence: bulk
Auto-Submitted: auto-replied (zimbra; vacation)

I am on holiday.
== None haraka
From: MAILER-DAEMON@mx.m.net
Subject: failure notice

Hi. This is the Haraka Mailer program at mx.m.net.
I'm afraid I wasn't able to deliver your message to the following addresses.
This is a permanent error; I've given up. Sorry it didn't work out.
== None opensmtpd
From: Mailer Daemon <MAILER-DAEMON@mx.m.net>
Subject: Delivery status notification: error

    Hi!

    This is the MAILER-DAEMON, please DO NOT REPLY to this email.

    An error has occurred while attempting to deliver a message for
    the following list of recipients:

b@m.net: 550 5.1.1 no such user
== delayed opensmtpd-delay
From: Mailer Daemon <MAILER-DAEMON@mx.m.net>
Subject: Delivery status notification: warning

    Hi!

    This is the MAILER-DAEMON, please DO NOT REPLY to this email.

    A message is delayed for more than 4 hours for the following
    list of recipients:

b@m.net: 450 later

    Please note that this is only a temporary failure report.
    The message is kept in the queue for up to 4 days.
    You DO NOT NEED to re-send the message to these recipients.
== None mdaemon
From: MDaemon@m.net
Subject: Permanent Delivery Failure

The attached message had PERMANENT fatal delivery errors!
== None mdaemon-unknown
From: MDaemon@m.net
Subject: Warning: b@m.net - User unknown!

The following recipient(s) could not be reached
== None mailenable
From: "Mail Server" <noreply@m.net>
Subject: Message Delivery Failure

MailEnable: Message could not be delivered to some recipients.
The following recipient(s) could not be reached:

        Recipient: [SMTP:b@m.net]
        Reason: The message could not be delivered because the domain name (m.net) does not appear to be registered.
== None mimecast
From: <postmaster@m.net>
Subject: [Postmaster] Email Delivery Failure

This is a message from the Mimecast (An information management company) mail system.
The message that you sent could not be delivered to:
== None mimecast-of-no-system
From: noreply@m.net
Subject: [Postmaster] Email Delivery Failure

The following address failed: b@m.net
== None proofpoint
From: Mail Delivery Subsystem <MAILER-DAEMON@mx0a.pphosted.com>
Subject: Undeliverable: hello
Auto-Submitted: auto-generated (failure)

The following addresses had permanent fatal errors
== None aol
From: "Mail Delivery Subsystem" <MAILER-DAEMON@aol.com>
Subject: Mail Delivery Problem

Your mail to the following recipients could not be delivered because they
are not accepting mail from list@ex.org
== None t-online
From: mailer-daemon@mailout.t-online.de
Subject: Message could not be delivered

|------------------------- Message log follows: -------------------------|
 no valid recipients were found for this message
== None gmx
From: "GMX Mailer Daemon" <mailer-daemon@gmx.de>
Subject: Mail delivery failed: returning message to sender

This message was created automatically by mail delivery software.

A message that you sent could not be delivered to one or more of
its recipients. This is a permanent error.
== None german-gateway
From: noreply@m.net
Subject: Nicht zustellbar: hello

Ihre Nachricht konnte nicht zugestellt werden.
== None quota-by-sieve
From: b@m.net
Subject: Automatically rejected mail
Auto-Submitted: auto-replied (rejected)
Content-Type: multipart/report; report-type=disposition-notification; boundary=x

--x
Content-Type: message/disposition-notification

Disposition: automatic-action/MDN-sent-automatically; deleted
--x--
== None report-without-an-action
From: admin@m.net
Subject: Utilisateur inconnu
Content-Type: multipart/report; report-type=delivery-status; boundary=x

--x
Content-Type: message/delivery-status

Reporting-MTA: mimesweeper.m.net
--x--
== None failure-that-quotes-a-delay
From: MAILER-DAEMON@mx.m.net
Subject: Returned mail: your order has been delayed

   ----- The following addresses had permanent fatal errors -----
== delayed gateway-that-calls-it-a-failure
From: gateway@m.net
Subject: Delivery failure notification

Your message with Subject: hello
could not be delivered to the following recipients:

b@m.net

Please do not resend your original message.

Delivery attempts will continue to be made for 5  day(s).
== automatic exchange-away
From: b@m.net
Subject: Automatic reply: hello
X-Auto-Response-Suppress: All
Auto-Submitted: auto-generated

I'm away.
== automatic exchange-away-of-a-failure
From: b@m.net
Subject: Automatic reply: Undeliverable: hello
X-Auto-Response-Suppress: All

I'm away.
== unrecognised suppressed
From: b@m.net
Subject: Thank you for your mail
X-Auto-Response-Suppress: OOF, DR

We shall answer soon.
== automatic auto-reply-precedence
From: b@m.net
Subject: Thank you for your mail
Precedence: auto_reply

I'm back in June.
== automatic autoresponder
From: b@m.net
Subject: Re: hello
X-Autoresponder: yes

Soon.
== automatic read
From: b@m.net
Subject: Read: hello
Content-Type: multipart/report; report-type=disposition-notification; boundary="x"

--x
Content-Type: text/plain

Your message was read on Tuesday.
--x
Content-Type: message/disposition-notification

Final-Recipient: rfc822;b@m.net
Disposition: manual-action/MDN-sent-manually; displayed
--x--
== automatic deleted-without-being-read
From: System Administrator <postmaster@m.net>
Subject: Not read: hello
Content-Type: multipart/report; report-type=disposition-notification; boundary="x"

--x
Content-Type: message/disposition-notification

Disposition: automatic-action/MDN-sent-automatically; deleted
--x--
== automatic postmaster-away
From: Postmaster <postmaster@m.net>
Subject: Out of office: hello
Auto-Submitted: auto-replied

I am on holiday.
== unrecognised away-without-a-word
From: b@m.net
Subject: hello

I can't read my mail until Monday.
== unrecognised answer-of-a-person
From: b@m.net
Subject: Re: Undelivered Mail Returned to Sender
In-Reply-To: <1@ex.org>

Your mail could not be delivered to me on Monday, is the list broken?
== unrecognised challenge
From: b@m.net
Subject: Please confirm that you are a person

Follow this link.
== unrecognised spam
From: karen@m.net
Subject: A gift card

Buy.
'''


def rows():
    """The name, the mail and the verdict of each."""
    for piece in ('\n' + NOTICES.strip()).split('\n== ')[1:]:
        title, _, mail = piece.partition('\n')
        verdict, name = title.split()
        yield name, mail.encode() + b'\n', None if verdict == 'None' else verdict
