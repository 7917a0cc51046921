//! Requests of a service as tasks of tokio: up to three queries at once, maintenance alone, and a limit for those who wait.

use std::sync::Arc;
use std::time::Duration;

use tokio::task::JoinHandle;
use tokio::time::{sleep, timeout};
use wanzoche::{Error, Op, Paths};

const POOL: &str = "
    resource pool cell
    operation query, maintain
    path { query : 3 } , maintain end
    end
";

/// A query waits without holding up its thread. If the task is dropped meanwhile, its turn goes to the next.
async fn query(paths: &Paths, query: Op) -> Result<(), Error> {
    let _connection = paths.enter_async(query).await?;
    sleep(Duration::from_millis(1)).await;
    Ok(())
}

/// What takes long and has no `await` runs on a thread of its own. The guard keeps the paths.
fn maintain(paths: Arc<Paths>, maintain: Op) -> JoinHandle<Result<u64, Error>> {
    tokio::task::spawn_blocking(move || {
        let alone = paths.enter_owned(maintain)?;
        Ok(alone.activation())
    })
}

#[tokio::main(flavor = "current_thread")]
async fn main() -> Result<(), Error> {
    let paths = Arc::new(Paths::open(POOL)?);
    let (queries, maintenance) = (paths.op("query")?, paths.op("maintain")?);

    let tasks: Vec<_> = (0..40)
        .map(|_| {
            let paths = Arc::clone(&paths);
            tokio::spawn(async move { query(&paths, queries).await })
        })
        .collect();
    for task in tasks {
        task.await.expect("no task panics")?;
    }
    maintain(Arc::clone(&paths), maintenance).await.expect("it doesn't panic")?;

    let alone = paths.enter_async(maintenance).await?;
    if timeout(Duration::from_millis(10), query(&paths, queries)).await.is_err() {
        if let Some(why) = paths.why(queries)? {
            println!("a query has to wait: {}", why.text());
        }
    }
    drop(alone);

    paths.close();
    println!("{}; {} wait", query(&paths, queries).await.unwrap_err(), paths.waiting(queries)?);
    println!("journal {}", paths.audit(&paths.journal()?)?);
    Ok(())
}
