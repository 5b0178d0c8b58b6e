// Two engines talk: a QuickFIX session plays the exchange, and everything that it sends is its own choice. Its numbers, its store, its answers to our
// Logon, Test Request, Resend Request, gap fill, Reject and Logout are QuickFIX's; only the fills and the accidents are told here.
// Standard output is a script of calls; standard input is the transcript of that script, read line by line as the script goes on, since what the
// receiver answered is what the session hears. At the end both sides must agree on the numbers.
#include <deque>
#include <iostream>
#include <string>
#include <quickfix/Application.h>
#include <quickfix/MessageStore.h>
#include <quickfix/Parser.h>
#include <quickfix/Responder.h>
#include <quickfix/Session.h>
#include <quickfix/fix42/ExecutionReport.h>
#include "code.h"

using std::string;

static const string CLOCK = "20250108-14:30:01.000";
static const FIX::UtcTimeStamp SENT(14, 30, 0, 250, 8, 1, 2025);
static const FIX::UtcTimeStamp TRADED(14, 29, 59, 875, 8, 1, 2025);

static void give_up(const string& why)
{
    fflush(stdout);
    fprintf(stderr, "talk: %s\n", why.c_str());
    exit(1);
}

// The exchange's side: what its session sends is on the way to us until it is delivered or lost. Every message is dated alike, so that a day can be
// run again.
struct Exchange : FIX::Application, FIX::Responder
{
    std::deque<string> way;
    int rejects = 0;

    static void date(FIX::Message& m)
    {
        m.getHeader().setField(FIX::SendingTime(SENT, 3));
        if (m.getHeader().isSetField(FIX::FIELD::OrigSendingTime)) m.getHeader().setField(FIX::OrigSendingTime(SENT, 3));
    }

    void onCreate(const FIX::SessionID&) {}
    void onLogon(const FIX::SessionID&) {}
    void onLogout(const FIX::SessionID&) {}
    void toAdmin(FIX::Message& m, const FIX::SessionID&) { date(m); }
    void toApp(FIX::Message& m, const FIX::SessionID&) throw(FIX::DoNotSend) { date(m); }
    void fromAdmin(const FIX::Message& m, const FIX::SessionID&)
        throw(FIX::FieldNotFound, FIX::IncorrectDataFormat, FIX::IncorrectTagValue, FIX::RejectLogon)
    { if (m.getHeader().getField(FIX::FIELD::MsgType) == "3") rejects++; }
    void fromApp(const FIX::Message&, const FIX::SessionID&)
        throw(FIX::FieldNotFound, FIX::IncorrectDataFormat, FIX::IncorrectTagValue, FIX::UnsupportedMessageType)
    { give_up("an application message from us"); }

    bool send(const string& bytes) { way.push_back(bytes); return true; }
    void disconnect() {}
};

static Exchange exchange;
static FIX::MemoryStoreFactory memory;
static FIX::Session* session;
static string said;                                     // the last line of the transcript

// the word or words between `before` and `after` in the last line of the transcript
static string part(const string& before, const string& after)
{
    size_t from = said.find(before), to = from == string::npos ? from : said.find(after, from + before.size());
    if (to == string::npos) give_up("no line of a transcript: " + said);
    return said.substr(from + before.size(), to - from - before.size());
}

// A line of the script; what we reply to it is handed back.
static string call(const string& line)
{
    printf("%s\n", line.c_str());
    if (!std::getline(std::cin, said)) give_up("the transcript ends after the script's last line");
    return decoded(part(" ; reply ", " ; note "));
}

static void hear(const string& reply)
{
    FIX::Parser parser;
    parser.addToStream(reply);
    string message;
    while (parser.readFixMessage(message)) session->next(message, FIX::UtcTimeStamp());
}

// Everything on the way arrives, in order, and what we reply, and what is answered to that.
static void deliver()
{
    while (!exchange.way.empty())
    {
        string message = exchange.way.front();
        exchange.way.pop_front();
        hear(call("message " + CLOCK + " " + coded(message)));
    }
}

static void ours(const string& name)
{
    hear(call(name + " " + CLOCK));
    deliver();
}

static void trade(const string& exec, const string& order, char side, int qty, int last, double price, int cum, bool again = false)
{
    char status = cum == qty ? FIX::OrdStatus_FILLED : FIX::OrdStatus_PARTIALLY_FILLED;
    FIX42::ExecutionReport m(FIX::OrderID(order), FIX::ExecID(exec), FIX::ExecTransType('0'), FIX::ExecType(status), FIX::OrdStatus(status),
        FIX::Symbol("ABC"), FIX::Side(side), FIX::LeavesQty(qty - cum), FIX::CumQty(cum), FIX::AvgPx(0));
    m.set(FIX::OrderQty(qty));
    m.set(FIX::LastShares(last));
    m.set(FIX::LastPx(price));
    m.set(FIX::TransactTime(TRADED, 3));
    if (again) m.getHeader().setField(FIX::PossResend(true));
    session->send(m);
}

// what became of the last message
static void expect(const string& what, const string& outcome)
{
    if (said.find(" " + outcome + " ; phase ") == string::npos) give_up(what + " should be " + outcome + ": " + said);
}

static void day()
{
    call("ids FIRM SPHR");
    ours("open");
    trade("T1", "8001", '1', 100, 10, 2.25, 10);
    trade("T2", "8001", '1', 100, 15, 2.3, 25);
    deliver();
    expect("T2", "booked 2 in");
    ours("test");
    expect("the Heartbeat to our Test Request", "heard");

    // T3 is lost on the way to us; T4 shows the gap, and both come again from the session's store
    trade("T3", "8002", '2', 40, 40, 0.5, 40);
    exchange.way.clear();
    trade("T4", "8001", '1', 100, 75, 2.35, 100);
    deliver();
    expect("T4", "booked 4 in");

    // a Heartbeat of ours is lost; the session asks, and our gap fill satisfies it
    call("heartbeat " + CLOCK);
    ours("heartbeat");
    expect("its Resend Request", "gapfill");

    // a report that we must refuse
    trade("T5", "8003", '5', 10, 1, 1, 1);
    deliver();
    expect("T5", "rejected 5 54");

    // a crash: the note of T6 is torn, the line falls, and T6 comes again after our Logon, with a gap fill for the Logon itself
    call("offer");
    call("ack 1");
    trade("T6", "8003", '1', 10, 4, 1.5, 4);
    deliver();
    call("cut 550");
    session->disconnect();
    session->setResponder(&exchange);
    ours("open");
    expect("what the session sent again", "reset 1");

    // a failover's copy, under a new number
    trade("T6", "8003", '1', 10, 4, 1.5, 4, true);
    deliver();
    expect("the copy of T6", "already");
    ours("close");
    expect("its Logout", "ended");
}

int main()
{
    session = new FIX::Session(exchange, memory, FIX::SessionID("FIX.4.2", "SPHR", "FIRM"), FIX::DataDictionaryProvider(),
        FIX::TimeRange(FIX::UtcTimeOnly(0, 0, 0), FIX::UtcTimeOnly(0, 0, 0)), 0, 0);
    session->setCheckLatency(false);
    session->setResponder(&exchange);
    day();
    if (exchange.rejects != 1) give_up("the session heard " + std::to_string(exchange.rejects) + " Rejects, not 1");
    if (part(" e ", " o ") != std::to_string(session->getExpectedSenderNum())) give_up("E is not the session's next number: " + said);
    if (part(" o ", " fills ") != std::to_string(session->getExpectedTargetNum())) give_up("O is not the number that the session expects: " + said);
    return 0;
}
