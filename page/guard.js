// Until the page has begun, a fault is that of a browser that cannot run it. (Old browsers have to read this script.)

/** Says which browsers can run the page. */
function refuseBrowser() {
  document.getElementById('old-browser').hidden = false;
  document.getElementsByTagName('main')[0].hidden = true;
}

window.onerror = refuseBrowser;
