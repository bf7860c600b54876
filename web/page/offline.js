// Keeps the page's files in the browser, so that it opens again where its server cannot be reached.

/** All that was loaded, and the page itself. */
function files() {
  const loaded = performance.getEntriesByType("resource").map(({ name }) => name);
  return [...new Set([location.href.split("#")[0], ...loaded.filter((name) => name.startsWith(location.origin))])];
}

/** Keeps the files; where the browser has no room or no right for it, the page works as well. */
export async function keepFiles() {
  try {
    await navigator.serviceWorker.register("offline.js");
    const cache = await caches.open("bench");
    await cache.addAll(files());
    document.documentElement.dataset.kept = "yes";
  } catch (error) {
    console.info(`The page is not kept for use without its server: ${error.message}`);
  }
}
