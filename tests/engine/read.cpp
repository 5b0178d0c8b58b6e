// Reads the messages that the receiver writes with QuickFIX, and compares: standard input has a reply on each line, in the code of the replay
// language (`|` is byte 1, `\hh` a byte in hex), one message or several. QuickFIX's stream parser must cut the reply into its messages and leave
// nothing over; its message parser must accept length and checksum; every field must have the value that stands in the line; and a Reject must have
// a Text, `at ` and a number, exactly where its SessionRejectReason is 6.
#include <iostream>
#include <map>
#include <stdexcept>
#include <string>
#include <quickfix/Fields.h>
#include <quickfix/Message.h>
#include <quickfix/Parser.h>
#include "code.h"

using std::string;
using std::runtime_error;

typedef std::map<int, string> Fields;

static void put(Fields& fields, int tag, const string& value)
{
    if (!fields.insert({ tag, value }).second) throw runtime_error("tag " + std::to_string(tag) + " stands twice");
}

// what the bytes say, cut at byte 1 and at the first `=`, without QuickFIX
static Fields cut(const string& bytes)
{
    Fields fields;
    for (size_t at = 0; at < bytes.size();)
    {
        size_t end = bytes.find('\001', at), equals = bytes.find('=', at);
        if (end == string::npos || equals == string::npos || equals > end) throw runtime_error("a piece that is no field");
        put(fields, atoi(bytes.c_str() + at), bytes.substr(equals + 1, end - equals - 1));
        at = end + 1;
    }
    return fields;
}

static void gather(Fields& fields, const FIX::FieldMap& part)
{
    for (const FIX::FieldBase& field : part) put(fields, field.getTag(), field.getString());
}

static int places = 0;

// 58 of a Reject, by QuickFIX's own fields
static void placed(const FIX::Message& reject)
{
    FIX::SessionRejectReason reason;
    FIX::Text text;
    reject.getField(reason);
    if (!reject.getFieldIfSet(text))
    {
        if (reason == 6) throw runtime_error("reason 6 and no Text");
        return;
    }
    if (reason != 6) throw runtime_error("a Text for another reason than 6");
    string said = text;
    if (said.compare(0, 3, "at ") != 0 || said.size() == 3 || said.find_first_not_of("0123456789", 3) != string::npos)
        throw runtime_error("Text is " + said);
    places++;
}

// what QuickFIX read
static Fields read(const string& bytes)
{
    FIX::Message message;
    message.setString(bytes, true);
    int tag = 0;
    if (!message.hasValidStructure(tag)) throw runtime_error("tag " + std::to_string(tag) + " is out of its place");
    for (int time : { FIX::FIELD::SendingTime, FIX::FIELD::OrigSendingTime })
        if (message.getHeader().isSetField(time)) FIX::UtcTimeStampConvertor::convert(message.getHeader().getField(time));
    if (message.isSetField(FIX::FIELD::SessionRejectReason)) placed(message);
    Fields fields;
    gather(fields, message.getHeader());
    gather(fields, message);
    gather(fields, message.getTrailer());
    return fields;
}

static void check(const string& bytes)
{
    Fields here = cut(bytes), there = read(bytes);
    for (auto& field : here)
    {
        auto found = there.find(field.first);
        if (found == there.end()) throw runtime_error("QuickFIX has no tag " + std::to_string(field.first));
        if (found->second != field.second)
            throw runtime_error("tag " + std::to_string(field.first) + " is " + field.second + ", QuickFIX read " + found->second);
    }
    if (here.size() != there.size()) throw runtime_error("QuickFIX read more fields than there are");
    printf("ok type %s number %s length %s checksum %s, %zu fields\n",
        here[35].c_str(), here[34].c_str(), here[9].c_str(), here[10].c_str(), here.size());
}

int main()
{
    string line;
    int lines = 0, messages = 0, failures = 0;
    while (std::getline(std::cin, line))
    {
        lines++;
        try
        {
            string bytes = decoded(line), message;
            size_t taken = 0;
            FIX::Parser parser;
            parser.addToStream(bytes);
            while (parser.readFixMessage(message))
            {
                check(message);
                messages++;
                taken += message.size();
            }
            if (taken != bytes.size()) throw runtime_error(std::to_string(bytes.size() - taken) + " bytes are no message to QuickFIX");
        }
        catch (std::exception& e)
        {
            failures++;
            printf("FAILED line %d: %s: %s\n", lines, e.what(), line.c_str());
        }
    }
    printf("%d messages read, %d with a place, %d lines failed\n", messages, places, failures);
    return failures != 0;
}
