#include "svg.h"

#include <stddef.h>

void svg_text(FILE *out, const char *text)
{
    for (; *text != '\0'; text++) {
        if (*text == '&')
            fputs("&amp;", out);
        else if (*text == '<')
            fputs("&lt;", out);
        else if (*text == '>')
            fputs("&gt;", out);
        else
            fputc(*text, out);
    }
}

void svg_label(FILE *out, double x, double y, const char *style, const char *text)
{
    fprintf(out, "<text x=\"%.1f\" y=\"%.1f\" class=\"%s\">", x, y, style);
    svg_text(out, text);
    fputs("</text>\n", out);
}

void svg_box(FILE *out, double x, double y, double width, double height, const char *fill, const char *title)
{
    fprintf(out, "<rect x=\"%.2f\" y=\"%.1f\" width=\"%.2f\" height=\"%.1f\" fill=\"%s\"", x, y, width, height, fill);
    if (title == NULL) {
        fputs("/>\n", out);
        return;
    }
    fputs("><title>", out);
    svg_text(out, title);
    fputs("</title></rect>\n", out);
}

void svg_line(FILE *out, double x1, double y1, double x2, double y2, const char *style)
{
    fprintf(out, "<line x1=\"%.1f\" y1=\"%.1f\" x2=\"%.1f\" y2=\"%.1f\" class=\"%s\"/>\n", x1, y1, x2, y2, style);
}

static const char styles[] =
    "<style>text{font-family:'DejaVu Sans',Verdana,Arial,sans-serif;fill:#212529}"
    ".title{font-size:18px;font-weight:bold}.line{font-size:14px}.note{font-size:12px;fill:#495057}"
    ".lane{font-size:13px;font-weight:bold;text-anchor:end}.small{font-size:11px;fill:#495057;text-anchor:end}"
    ".in{font-size:11px;text-anchor:middle;pointer-events:none}.tick{font-size:12px;text-anchor:middle;fill:#495057}"
    ".legend{font-size:12px}.mapped{font-size:11px;fill:#1864ab}.lost{font-size:11px;fill:#c92a2a}"
    ".grid{stroke:#dee2e6;stroke-width:1}.axis{stroke:#495057;stroke-width:1}"
    ".told{stroke:#c92a2a;stroke-width:1;stroke-dasharray:4 3}"
    ".frame{fill:none;stroke:#adb5bd;stroke-width:1;pointer-events:none}"
    ".outline{fill:none;stroke:#c92a2a;stroke-width:2.5;pointer-events:none}</style>\n"
    "<defs><pattern id=\"unknown\" width=\"7\" height=\"7\" patternUnits=\"userSpaceOnUse\" patternTransform=\"rotate(45)\">"
    "<rect width=\"7\" height=\"7\" fill=\"#f1f3f5\"/><rect width=\"2\" height=\"7\" fill=\"#dee2e6\"/></pattern>"
    "<pattern id=\"waited\" width=\"9\" height=\"9\" patternUnits=\"userSpaceOnUse\" patternTransform=\"rotate(-45)\">"
    "<rect width=\"9\" height=\"9\" fill=\"#ffe3e3\"/><rect width=\"2.5\" height=\"9\" fill=\"#ffa8a8\"/></pattern></defs>\n";

void svg_begin(FILE *out, int width, int height)
{
    fprintf(out, "<svg xmlns=\"http://www.w3.org/2000/svg\" width=\"%d\" height=\"%d\" viewBox=\"0 0 %d %d\">\n", width, height, width, height);
    fputs(styles, out);
    fprintf(out, "<rect width=\"%d\" height=\"%d\" fill=\"#ffffff\"/>\n", width, height);
}
