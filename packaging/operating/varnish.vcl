# Varnish before haproxy and replicas, as /etc/varnish/default.vcl. /etc/varnish/publisher.vcl is examples/proxies/varnish.vcl with the port of haproxy.
vcl 4.1;

# A replica ended while it sent a reply. haproxy had begun to hand it on, and cannot ask another one; Varnish holds it back until it is whole.
sub vcl_backend_error {
    if ((bereq.method == "GET" || bereq.method == "HEAD") && bereq.retries < 4) {
        return (retry);
    }
}

sub vcl_backend_response {
    if ((bereq.method == "GET" || bereq.method == "HEAD") && beresp.status >= 500 && bereq.retries < 4) {
        return (retry);
    }
}

include "publisher.vcl";
