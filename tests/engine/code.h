// The code of the replay language for bytes, shared by the programs here: `|` is byte 1, `\hh` that byte in hex, 33 to 126 otherwise as they are.
#include <cstdio>
#include <cstdlib>
#include <string>

static inline std::string coded(const std::string& bytes)
{
    std::string word;
    for (unsigned char c : bytes)
    {
        char hex[4];
        snprintf(hex, sizeof hex, "\\%02x", c);
        if (c == 1) word += '|';
        else if (c >= 33 && c <= 126 && c != '|' && c != '\\') word += char(c);
        else word += hex;
    }
    return word;
}

static inline std::string decoded(const std::string& word)
{
    std::string bytes;
    if (word == "-") return bytes;
    for (size_t i = 0; i < word.size(); i++)
    {
        if (word[i] == '|') bytes += '\001';
        else if (word[i] != '\\') bytes += word[i];
        else
        {
            bytes += char(strtol(word.substr(i + 1, 2).c_str(), 0, 16));
            i += 2;
        }
    }
    return bytes;
}
