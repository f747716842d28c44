/* Stands for the header of Zeek's that <binpac.h> includes and Debian's binpac does not have: regular expressions, which no interval uses. */
#ifndef ZEEK_RE_H
#define ZEEK_RE_H

namespace zeek {
class RE_Matcher {
  public:
    explicit RE_Matcher(const char *pattern);
    bool Compile();
    int MatchPrefix(const unsigned char *data, int length);
};
}

#endif
