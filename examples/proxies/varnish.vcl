# Varnish before a publisher of `lc serve`, for many clients at once, browsers among them. Over https hitch.conf beside this file comes before it.
# docs/PROXIES.md starts and tries both: the limits on heads and on slow clients are parameters of the command there.
#
# Yours are to be put in: the publisher 127.0.0.1:8081, and the ports in the command.
#
# Pages are published under `http`, and Varnish changes no body. Over https it sends redirects and the field Link to https. Links within a page stay
# `http`: the client's own document says `Content-Security-Policy: upgrade-insecure-requests`, and browsers then follow them over https.
vcl 4.1;

import std;
import vsthrottle;

backend publisher {
    .host = "127.0.0.1";
    .port = "8081";
    .connect_timeout = 5s;
    .first_byte_timeout = 60s;
    .between_bytes_timeout = 30s;
}

acl here {
    "127.0.0.1";
    "::1";
}

sub vcl_recv {
    # A limit of a client: 1,000 requests in 10 seconds.
    if (vsthrottle.is_denied(client.identity, 1000, 10s)) {
        return (synth(429));
    }

    # A browser asks whether it may send Accept-Datetime.
    if (req.method == "OPTIONS") {
        return (synth(204));
    }

    # Messages: from this machine alone. The whole body is read first, so that a slow one holds no publisher.
    if (req.url ~ "^[^?]*/updates$") {
        if (client.ip !~ here) {
            return (synth(403));
        }
        std.cache_req_body(16MB);
        return (pass);
    }
    if (req.url !~ "^[^?]*/(memento/connections|stops|connections)(\?|$)") {
        return (synth(404));
    }
    if (req.method != "GET" && req.method != "HEAD") {
        return (pass);
    }

    # The time gate: its reply follows from Accept-Datetime and from the messages so far, and is small.
    if (req.url !~ "^[^?]*/(memento/connections|stops)(\?|$)") {
        return (pass);
    }

    # Pages and stops: the publisher is asked for each once, whatever cookies a browser sends.
    unset req.http.Cookie;
    return (hash);
}

# The cache finds a page by its path and query, whatever name of the host a client writes.
sub vcl_hash {
    hash_data(req.url);
    return (lookup);
}

# A publisher gets a connection for each request, so that none idles there.
sub vcl_backend_fetch {
    set bereq.http.Connection = "close";
}

# A page never changes. The stops have no version, and may change when the publisher is started anew. All else is not kept, errors among it. A page is
# JSON, which gzip makes about a tenth of; Varnish unpacks it for who does not take gzip. It takes a whole reply before it sends the first byte, so that
# its length is known: clients as `lc plan` take no reply in chunks.
sub vcl_backend_response {
    set beresp.do_stream = false;
    if (beresp.status == 200 && bereq.url ~ "^[^?]*/memento/connections(\?|$)") {
        set beresp.ttl = 365d;
        set beresp.http.Cache-Control = "public, max-age=31536000, immutable";
        set beresp.do_gzip = true;
    } else if (beresp.status == 200 && bereq.url ~ "^[^?]*/stops(\?|$)") {
        set beresp.ttl = 1h;
        set beresp.http.Cache-Control = "public, max-age=3600";
        set beresp.do_gzip = true;
    } else {
        set beresp.ttl = 0s;
        set beresp.uncacheable = true;
        set beresp.http.Cache-Control = "no-cache";
    }
    set beresp.grace = 0s;
    return (deliver);
}

# What the publisher did not answer.
sub vcl_backend_error {
    set beresp.http.Cache-Control = "no-cache";
    return (deliver);
}

# For browsers: a planner may read errors, too.
sub for_browsers {
    set resp.http.Access-Control-Allow-Origin = "*";
    set resp.http.Access-Control-Expose-Headers = "Link, Location, Memento-Datetime, Vary";
}

sub vcl_deliver {
    call for_browsers;
    # The cache counts how old a page is. That says nothing of one that never changes.
    unset resp.http.Age;
    if (local.socket == "https") {
        set resp.http.Location = regsub(resp.http.Location, "^http:", "https:");
        set resp.http.Link = regsub(resp.http.Link, "^<http:", "<https:");
    }
    return (deliver);
}

sub vcl_synth {
    call for_browsers;
    set resp.http.Cache-Control = "no-cache";
    if (resp.status == 204) {
        set resp.http.Access-Control-Allow-Methods = "GET, HEAD";
        set resp.http.Access-Control-Allow-Headers = "Accept-Datetime";
        set resp.http.Access-Control-Max-Age = "86400";
    }
    return (deliver);
}
