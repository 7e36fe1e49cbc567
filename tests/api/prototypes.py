"""prototypes.py PAGE HEADER..: that the page has the prototype of every function that the headers define, word for word, but for those that
are the headers' own. Prints what is missing; status 1 if anything is."""
import re
import sys

DEFINED = re.compile(r'^(?:BUFPOOL_INLINE|static inline) ([^;{}()]*?\b(bufpool_\w+)\([^)]*\))\s*\{', re.M)
# the beginnings of names that are the headers' own, and those that are not
OWN = ('bufpool_meet_interface', 'bufpool_why_', 'bufpool_print_', 'bufpool_dump_', 'bufpool_view_', 'bufpool_free_', 'bufpool_keep',
       'bufpool_most_kept', 'bufpool_file_text', 'bufpool_name_text', 'bufpool_page_text', 'bufpool_usage_text')
PUBLIC = ('bufpool_why_set_up', 'bufpool_print_named')


def words(text):
    return re.sub(r'\s+', ' ', text)


def main(page, headers):
    said = words(open(page, encoding='utf8').read())
    found = [one for header in headers for one in DEFINED.findall(open(header, encoding='utf8').read())]
    inline = sum(len(re.findall(r'^(?:BUFPOOL_INLINE|static inline) ', open(header, encoding='utf8').read(), re.M)) for header in headers)
    missing = [words(prototype) for prototype, name in found
               if (name in PUBLIC or not name.startswith(OWN)) and words(prototype) not in said]
    print('\n'.join(missing))
    return bool(missing) or not found or len(found) != inline


sys.exit(main(sys.argv[1], sys.argv[2:]))
