// Writes engine.script: a day of the drop session in the replay language, with every message of the exchange made by QuickFIX.
// The lines between are calls of ours. The story: log on, fills, a crash with a torn note, the repair, a failover's copies, a gap whose
// repair is garbled, faults of every kind, resets, the ways in which a session ends, the queue, a new day.
#include <string>
#include <quickfix/Message.h>
#include <quickfix/fix42/BusinessMessageReject.h>
#include <quickfix/fix42/ExecutionReport.h>
#include <quickfix/fix42/Heartbeat.h>
#include <quickfix/fix42/Logon.h>
#include <quickfix/fix42/Logout.h>
#include <quickfix/fix42/News.h>
#include <quickfix/fix42/Reject.h>
#include <quickfix/fix42/ResendRequest.h>
#include <quickfix/fix42/SequenceReset.h>
#include <quickfix/fix42/TestRequest.h>
#include "code.h"

using std::string;

static const string CLOCK = "20250108-14:30:01.000";                    // the time given to our calls
static const FIX::UtcTimeStamp SENT(14, 30, 0, 250, 8, 1, 2025);        // the exchange's 52
static const FIX::UtcTimeStamp TRADED(14, 29, 59, 875, 8, 1, 2025);     // and 60

static int number = 1;                                                  // the exchange's next 34

// ---- lines of the script

static void call(const string& line) { printf("%s\n", line.c_str()); }

static void give(const string& bytes) { call("message " + CLOCK + " " + coded(bytes)); }

// ---- messages

static FIX::Message sent(FIX::Message m)
{
    m.getHeader().setField(FIX::SenderCompID("SPHR"));
    m.getHeader().setField(FIX::TargetCompID("FIRM"));
    m.getHeader().setField(FIX::SendingTime(SENT, 3));
    return m;
}

static string numbered(FIX::Message m, int n)
{
    m.getHeader().setField(FIX::MsgSeqNum(n));
    return m.toString();
}

// a message of the exchange in its turn
static void send(const FIX::Message& m) { give(numbered(m, number++)); }

// one sent again after a Resend Request, under its old number
static FIX::Message again(FIX::Message m)
{
    m.getHeader().setField(FIX::PossDupFlag(true));
    m.getHeader().setField(FIX::OrigSendingTime(SENT, 3));
    return m;
}

static FIX::Message with(FIX::Message m, int tag, const string& value) { m.setField(tag, value); return m; }
static FIX::Message with(FIX::Message m, const FIX::FieldBase& field) { m.setField(field); return m; }
static FIX::Message headed(FIX::Message m, int tag, const string& value) { m.getHeader().setField(tag, value); return m; }
static FIX::Message without(FIX::Message m, int tag) { m.removeField(tag); return m; }
static FIX::Message headless(FIX::Message m, int tag) { m.getHeader().removeField(tag); return m; }
static FIX::Message twice(FIX::Message m, int tag) { m.setField(FIX::FieldBase(tag, m.getField(tag)), false); return m; }

static FIX::Message logon() { return sent(FIX42::Logon(FIX::EncryptMethod(0), FIX::HeartBtInt(30))); }
static FIX::Message heartbeat() { return sent(FIX42::Heartbeat()); }
static FIX::Message test(const string& word) { return sent(FIX42::TestRequest(FIX::TestReqID(word))); }
static FIX::Message resend(int from, int to) { return sent(FIX42::ResendRequest(FIX::BeginSeqNo(from), FIX::EndSeqNo(to))); }
static FIX::Message logout() { return sent(FIX42::Logout()); }
static FIX::Message reset(int to) { return sent(FIX42::SequenceReset(FIX::NewSeqNo(to))); }
static FIX::Message gapFill(int to) { return with(reset(to), FIX::GapFillFlag(true)); }

// the fill of `last` at `price` that brings the order's sum to `cum`
static FIX::Message fill(const string& exec, const string& order, const string& symbol, char side, int qty, int last, double price, int cum)
{
    char status = cum == qty ? FIX::OrdStatus_FILLED : FIX::OrdStatus_PARTIALLY_FILLED;
    FIX42::ExecutionReport m(FIX::OrderID(order), FIX::ExecID(exec), FIX::ExecTransType('0'), FIX::ExecType(status), FIX::OrdStatus(status),
        FIX::Symbol(symbol), FIX::Side(side), FIX::LeavesQty(qty - cum), FIX::CumQty(cum), FIX::AvgPx(0));
    m.set(FIX::ClOrdID("C" + order));
    m.set(FIX::OrderQty(qty));
    m.set(FIX::LastShares(last));
    m.set(FIX::LastPx(price));
    m.set(FIX::TransactTime(TRADED, 3));
    return sent(m);
}

// the same where what was left of the order is cancelled, and the fill crossed the cancel: nothing is open
static FIX::Message crossed(FIX::Message m)
{
    return with(with(with(m, FIX::ExecType(FIX::ExecType_PARTIAL_FILL)), FIX::OrdStatus(FIX::OrdStatus_CANCELED)), FIX::LeavesQty(0));
}

// a Trade Cancel, of the exchange's own type: of the trade of X1, with the tags that section 5.2 of the drop marks Y
static FIX::Message correction()
{
    FIX::Message m;
    m.getHeader().setField(FIX::BeginString("FIX.4.2"));
    m.getHeader().setField(FIX::MsgType("UCC"));
    m.setField(FIX::ExecTransType('1'));
    m.setField(9020, "1");
    m.setField(FIX::ExecID("X1"));
    m.setField(1003, "T81");
    m.setField(9021, "0");
    m.setField(FIX::OrderID("7001"));
    m.setField(FIX::ClOrdID("C7001"));
    m.setField(FIX::UtcTimeStampField(FIX::FIELD::OrigTime, TRADED, 3));
    m.setField(FIX::TransactTime(TRADED, 3));
    m.setField(FIX::SecurityType("OPT"));
    m.setField(FIX::Symbol("ABC"));
    m.setField(FIX::Side('1'));
    m.setField(FIX::LastPx(1.05));
    m.setField(FIX::LastShares(20));
    return sent(m);
}

// ---- the day

static void logOn()
{
    call("ids FIRM SPHR");
    call("open " + CLOCK);
    send(logon());
    call("heartbeat " + CLOCK);
    call("test " + CLOCK);
    send(heartbeat());
    send(with(heartbeat(), FIX::TestReqID("3")));
    send(test("ARE YOU THERE?"));
    send(resend(1, 0));
    send(resend(2, 3));
    send(with(sent(FIX42::Reject(FIX::RefSeqNum(2))), FIX::Text("not ours")));
}

static FIX::Message x3() { return fill("X3", "7002", "ABC", '2', 10, 4, 0.05, 4); }

// Fills, an offer and its acknowledgement, an offer without one; then X3's note is torn.
static void crash()
{
    send(fill("X1", "7001", "ABC", '1', 50, 20, 1.05, 20));
    call("offer");
    call("ack 1");
    send(fill("X2", "7001", "ABC", '1', 50, 30, 1.1, 50));
    call("offer");
    send(x3());
    call("cut 350");
    call("ack 2");
    call("offer");
    call("again");
    call("offer");
    call("ack 2");
}

// Log on again above E: X3 is sent again, twice, since a Heartbeat above E made us ask twice. A failover's copy then comes under a new number.
static void repair()
{
    int lost = number - 1;
    call("open " + CLOCK);
    send(logon());
    send(heartbeat());
    give(numbered(again(x3()), lost));
    give(numbered(again(gapFill(number)), lost + 1));
    give(numbered(again(x3()), lost));
    send(headed(x3(), FIX::FIELD::PossResend, "Y"));
}

// The first of three fills is lost and its copy garbled; the skip leads to a Heartbeat, which makes us ask again. One fill was carried in from
// an earlier day, one is out of step, one has tags and a group that the receiver does not list.
static void gap()
{
    FIX::Message carried = fill("X4", "6001", "XYZ", '1', 200, 20, 3, 120);
    FIX::Message ahead = fill("X5", "7002", "ABC", '2', 10, 2, 0.0625, 9);
    FIX42::ExecutionReport odd(fill("X6", "6001", "XYZ", '1', 200, 80, 1234567.25, 200));
    odd.set(FIX::TransactTime(TRADED, 0));
    odd.set(FIX::Text("a|b\\c d"));
    for (const char* broker : { "BRKA", "BRKB" })
    {
        FIX42::ExecutionReport::NoContraBrokers group;
        group.set(FIX::ContraBroker(broker));
        odd.addGroup(group);
    }
    int first = number++;
    send(ahead);
    send(odd);
    string copy = numbered(again(carried), first);
    string damaged = copy;
    damaged.replace(damaged.find("38=200"), 6, "38=300");
    string beat = numbered(heartbeat(), number++);
    give(damaged + beat);
    give(beat);
    give(copy.substr(0, 100));
    give(copy + numbered(again(ahead), first + 1));
    give(numbered(again(ahead), first + 1));
    give(numbered(again(odd), first + 2));
    give(numbered(again(gapFill(number)), first + 3));
    // their own Resend Request one ahead: answered first, then we ask
    give(numbered(resend(4, 0), number + 1));
    give(numbered(again(gapFill(number + 2)), number));
    number += 2;
}

static void faults()
{
    FIX::Message good = fill("Y1", "7003", "DEF", '1', 30, 10, 2.5, 10);
    for (int tag : { 17, 37, 55, 32, 31, 151, 39, 60 }) send(without(good, tag));
    send(with(good, FIX::ExecID("Y 1")));
    send(with(good, FIX::OrderID("123456789012345678901")));
    send(with(good, FIX::ExecTransType('1')));
    send(with(good, FIX::Symbol("ABCDEFGHI")));
    send(with(good, FIX::Side('5')));
    send(with(good, FIX::OrderQty(2.5)));
    send(with(good, FIX::LastShares(1000000)));
    send(with(good, FIX::LastPx(-0.05)));
    send(with(good, FIX::LastPx(1.00005)));
    send(with(good, FIX::CumQty(0)));
    send(with(good, FIX::LeavesQty(-1)));
    send(with(good, FIX::TransactTime(TRADED, 6)));
    send(with(good, FIX::FIELD::TransactTime, "20250229-14:29:59"));
    send(with(good, FIX::FIELD::MultiLegReportingType, "1"));
    send(twice(good, FIX::FIELD::Symbol));
    send(with(good, FIX::Text("")));
    send(with(good, FIX::Text(string("a\001b"))));
    send(with(good, 100000, "a tag of six digits"));
    send(headless(good, FIX::FIELD::SendingTime));
    send(headed(good, FIX::FIELD::PossResend, "n"));
    // sums that do not fit
    send(with(good, FIX::LastShares(11)));
    send(with(good, FIX::CumQty(31)));
    send(with(good, FIX::LeavesQty(21)));
    send(with(good, FIX::ExecType('2')));
    send(with(good, FIX::OrdStatus('6')));
    // a leg of a spread is set aside; then what the book knows otherwise
    send(with(good, FIX::FIELD::MultiLegReportingType, "2"));
    send(with(x3(), FIX::LastPx(0.06)));
    send(fill("Y2", "7002", "ABD", '2', 10, 1, 0.05, 10));
    send(fill("Y3", "7002", "ABC", '1', 10, 1, 0.05, 10));
}

static void session()
{
    send(with(sent(FIX42::BusinessMessageReject(FIX::RefMsgType("8"), FIX::BusinessRejectReason(3))), FIX::RefSeqNum(2)));
    send(correction());
    send(sent(FIX42::News(FIX::Headline("closing soon"))));
    send(logon());
    send(without(test("x"), FIX::FIELD::TestReqID));
    send(resend(1000, 0));
    send(resend(3, 2));
    // a gap fill that leads nowhere, one that says not where to; then reset mode, back, to where we are, and forward: its number does not count
    send(gapFill(number));
    send(without(gapFill(number), FIX::FIELD::NewSeqNo));
    give(numbered(reset(number - 1), number));
    give(numbered(reset(number), 1));
    give(numbered(reset(number + 100), 1));
    number += 100;
}

static void refused(const string& bytes)
{
    call("open " + CLOCK);
    give(bytes);
}

// The ways in which a session ends by a fault; then one that we close, with a fill on its way that crossed a cancel.
static void ends()
{
    give(numbered(heartbeat(), 1));
    refused(numbered(headed(logon(), FIX::FIELD::SenderCompID, "SPHX"), number));
    refused(numbered(headless(logon(), FIX::FIELD::TargetCompID), number));
    refused(logon().toString());
    refused(numbered(heartbeat(), number));
    refused(numbered(with(logon(), FIX::ResetSeqNumFlag(true)), number));
    refused(numbered(headed(logon(), FIX::FIELD::BeginString, "FIX.4.4"), number));
    send(logon());
    call("close " + CLOCK);
    send(crossed(fill("X7", "7002", "ABC", '2', 15, 1, 0.05, 10)));
    send(logout());
}

// What waits is offered and acknowledged; the day can then end, and the next one begins at 1.
static void night()
{
    call("newday");
    for (int n = 3; n <= 9; n++) call("offer");
    call("ack 8");
    call("newday");
    number = 1;
    call("open " + CLOCK);
    send(logon());
    send(logout());
}

int main()
{
    logOn();
    crash();
    repair();
    gap();
    faults();
    session();
    ends();
    night();
}
